// Prints the rows of an assembly as Mono's runtime reads them: the table, the row, and each column as a number, a
// string, the first 16 bytes of a blob, a GUID, or the table and the row of an index. The kinds of the columns and the
// tags are those of ECMA-335, II.22 and II.24.2.6.
using System;
using System.Collections.Generic;
using System.Runtime.InteropServices;

class Rows {
    [DllImport("__Internal")] static extern IntPtr mono_image_open(string name, out int status);
    [DllImport("__Internal")] static extern IntPtr mono_image_get_table_info(IntPtr image, int table);
    [DllImport("__Internal")] static extern int mono_table_info_get_rows(IntPtr table);
    [DllImport("__Internal")] static extern uint mono_metadata_decode_row_col(IntPtr table, int row, uint column);
    [DllImport("__Internal")] static extern IntPtr mono_metadata_string_heap(IntPtr image, uint at);
    [DllImport("__Internal")] static extern IntPtr mono_metadata_blob_heap(IntPtr image, uint at);
    [DllImport("__Internal")] static extern IntPtr mono_metadata_guid_heap(IntPtr image, uint at);
    [DllImport("__Internal")] static extern uint mono_metadata_decode_blob_size(IntPtr from, out IntPtr rest);

    static string[] kinds = {
        "u s g g g", "ResolutionScope s s", "u s s TypeDefOrRef 04 06", "", "u s b", "", "u u u s b 08", "", "u u s",
        "02 TypeDefOrRef", "MemberRefParent s b", "u u HasConstant b", "HasCustomAttribute CustomAttributeType b",
        "HasFieldMarshal b", "u HasDeclSecurity b", "u u 02", "u 04", "b", "02 14", "", "u s TypeDefOrRef", "02 17", "",
        "u s b", "u 06 HasSemantics", "02 MethodDefOrRef MethodDefOrRef", "s", "b", "u MemberForwarded s 1A", "u 04", "", "",
        "u u u u u u b s s", "u", "u u u", "u u u u u b s s b", "u 23", "u u u 23", "u s b", "u u s s Implementation",
        "u u s Implementation", "02 02", "u u TypeOrMethodDef s", "MethodDefOrRef b", "2A TypeDefOrRef",
    };
    // How many bits the tag has, and the table of each tag.
    static Dictionary<string, string> tags = new Dictionary<string, string> {
        {"TypeDefOrRef", "2 02 01 1B"}, {"HasConstant", "2 04 08 17"},
        {"HasCustomAttribute", "5 06 04 01 02 08 09 0A 00 0E 17 14 11 1A 1B 20 23 26 27 28 2A 2C 2B"},
        {"HasFieldMarshal", "1 04 08"}, {"HasDeclSecurity", "2 02 06 20"}, {"MemberRefParent", "3 02 01 1A 06 1B"},
        {"HasSemantics", "1 14 17"}, {"MethodDefOrRef", "1 06 0A"}, {"MemberForwarded", "1 04 06"},
        {"Implementation", "2 26 23 27"}, {"CustomAttributeType", "3 - - 06 0A -"}, {"ResolutionScope", "2 00 1A 23 01"},
        {"TypeOrMethodDef", "1 02 06"},
    };

    static string Hex(IntPtr from, uint count) {
        string text = "";
        for (int k = 0; k < count; k++) text += Marshal.ReadByte(from, k).ToString("X2");
        return text;
    }
    static string Blob(IntPtr image, uint at) {
        if (at == 0) return "[]";
        IntPtr from;
        uint count = mono_metadata_decode_blob_size(mono_metadata_blob_heap(image, at), out from);
        return "[" + Hex(from, Math.Min(count, 16)) + (count > 16 ? "+" + (count - 16) : "") + "]";
    }
    static string Coded(string[] known, uint value) {
        int bits = int.Parse(known[0]);
        return known[1 + (int)(value & ((1u << bits) - 1))] + ":" + (value >> bits);
    }
    static string Cell(IntPtr image, string kind, uint value) {
        switch (kind) {
        case "u": return value.ToString();
        case "s": return "'" + Marshal.PtrToStringAnsi(mono_metadata_string_heap(image, value)) + "'";
        case "b": return Blob(image, value);
        case "g": return "{" + (value == 0 ? "" : Hex(mono_metadata_guid_heap(image, value), 16)) + "}";
        default: return kind.Length == 2 ? kind + ":" + value : Coded(tags[kind].Split(' '), value);
        }
    }
    static void Main(string[] names) {
        int status;
        IntPtr image = mono_image_open(names[0], out status);
        for (int table = 0; table < kinds.Length; table++) {
            if (kinds[table] == "") continue;
            IntPtr info = mono_image_get_table_info(image, table);
            string[] columns = kinds[table].Split(' ');
            for (int row = 0; row < mono_table_info_get_rows(info); row++) {
                Console.Write("{0:X2} {1}:", table, row + 1);
                for (uint k = 0; k < columns.Length; k++)
                    Console.Write(" " + Cell(image, columns[k], mono_metadata_decode_row_col(info, row, k)));
                Console.WriteLine();
            }
        }
    }
}
