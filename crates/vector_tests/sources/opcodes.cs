// Prints the instructions that .NET knows: the value, the mnemonic, the operand, and what is taken and left.
using System;
using System.Linq;
using System.Reflection;
using System.Reflection.Emit;

class Instructions {
    static string Count(string behaviour) {
        if (behaviour.StartsWith("Var")) return "None";
        return "Some(" + (behaviour.EndsWith("0") ? 0 : behaviour.Split('_').Length) + ")";
    }
    static void Main() {
        foreach (var it in typeof(OpCodes).GetFields().Select(field => (OpCode)field.GetValue(null)).OrderBy(it => (ushort)it.Value))
            if (it.OpCodeType != OpCodeType.Nternal)
                Console.WriteLine("(0x{0:X2}, \"{1}\", {2}, {3}, {4}),", (ushort)it.Value, it.Name, it.OperandType,
                    Count(it.StackBehaviourPop.ToString()), Count(it.StackBehaviourPush.ToString()));
    }
}
