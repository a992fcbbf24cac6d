namespace Far { public class Gone { public class Inner { } } }
