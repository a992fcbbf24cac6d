[assembly: System.Runtime.CompilerServices.TypeForwardedTo(typeof(System.Action))]
class Kept { }
