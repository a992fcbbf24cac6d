.assembly extern mscorlib { .ver 4:0:0:0 .publickeytoken = (B7 7A 5C 56 19 34 E0 89) }
.assembly extern Far { .ver 5:6:7:8 .locale "de" .hash = (11 12 13) }
.assembly Vectors
{
  .hash algorithm 0x00008004
  .ver 1:2:3:4
  .locale "fr"
  .publickey = (21 22 23 24 25)
  .custom instance void [mscorlib]System.Reflection.AssemblyTitleAttribute::.ctor(string) = (01 00 01 74 00 00)
  .permissionset reqmin = (3C 00 50 00 65 00 72 00 6D 00 69 00 73 00 73 00 69 00 6F 00 6E 00 53 00 65 00 74 00 20 00 63 00 6C 00 61 00 73 00 73 00 3D 00 22 00 53 00 79 00 73 00 74 00 65 00 6D 00 2E 00 53 00 65 00 63 00 75 00 72 00 69 00 74 00 79 00 2E 00 50 00 65 00 72 00 6D 00 69 00 73 00 73 00 69 00 6F 00 6E 00 53 00 65 00 74 00 22 00 2F 00 3E 00)
}
.module vectors.dll
.custom instance void [mscorlib]System.ObsoleteAttribute::.ctor() = (01 00 00 00)
.module extern 'lib'
.module extern second
.file part.netmodule .hash = (31 32)
.file nometadata data.bin .hash = (33 34 35)
.class extern public Away.Gone { .assembly extern Far .custom instance void Space.Mark::.ctor() = (01 00 00 00) }
.class extern nested public Inner { .class extern Away.Gone }
.mresource public near { }
.mresource private there { .file data.bin at 0 }
.mresource public far { .custom instance void Space.Mark::.ctor() = (01 00 00 00) }

.class public auto ansi sealed Space.Mark extends [mscorlib]System.Attribute
{
  .method public hidebysig specialname rtspecialname instance void .ctor() cil managed
  {
    ldarg.0
    call instance void [mscorlib]System.Attribute::.ctor()
    ret
  }
}
.class public abstract sequential ansi beforefieldinit Space.Base extends [mscorlib]System.Object
{
  .pack 4
  .size 12
  .field public static literal int32 One = int32(1)
  .field private marshal(int8) int32 two
  .custom instance void Space.Mark::.ctor() = (01 00 00 00)
  .field public static int32 data at D1
  .field assembly static int64 more at D2
  .method public hidebysig specialname rtspecialname instance void .ctor() cil managed
  {
    .maxstack 8
    ldarg.0
    call instance void [mscorlib]System.Object::.ctor()
    ret
  }
  .method public hidebysig newslot abstract virtual instance int32 Work(int32 first, [out] string& second) cil managed
  {
    .param [1] = int32(5)
  }
}
.class public explicit ansi Space.Layout extends [mscorlib]System.ValueType
{
  .pack 2
  .size 24
  .field [0] public int32 a
  .field [8] public int64 b
}
.class interface public abstract ansi Space.IThing { 
  .method public abstract virtual instance void Do() cil managed { }
}
.class interface public abstract ansi Space.IOther`1<class T> { 
  .method public abstract virtual instance !T Get() cil managed { }
}
.class public auto ansi Space.Derived`2<class (Space.Base) K, V> extends Space.Base implements Space.IThing, class Space.IOther`1<int32>
{
  .custom instance void [mscorlib]System.ObsoleteAttribute::.ctor() = (01 00 00 00)
  .permissionset demand = (3C 00 50 00 65 00 72 00 6D 00 69 00 73 00 73 00 69 00 6F 00 6E 00 53 00 65 00 74 00 20 00 63 00 6C 00 61 00 73 00 73 00 3D 00 22 00 53 00 79 00 73 00 74 00 65 00 6D 00 2E 00 53 00 65 00 63 00 75 00 72 00 69 00 74 00 79 00 2E 00 50 00 65 00 72 00 6D 00 69 00 73 00 73 00 69 00 6F 00 6E 00 53 00 65 00 74 00 22 00 2F 00 3E 00)
  .param type V
  .custom instance void [mscorlib]System.ObsoleteAttribute::.ctor() = (01 00 00 00)
  .field private !0 key
  .field private valuetype [mscorlib]System.Environment/SpecialFolder Folder
  .field private class [.module second]Some.Kind Kinds
  .field public class [mscorlib]System.EventHandler Notify
  .method public hidebysig specialname rtspecialname instance void .ctor() cil managed
  {
    .maxstack 8
    ldarg.0
    call instance void Space.Base::.ctor()
    ret
  }
  .method public hidebysig virtual instance int32 Work(int32 first, [out] string& second) cil managed
  {
    .locals init (int32 u, class Space.Base w)
    .param [2]
    .custom instance void [mscorlib]System.Runtime.InteropServices.OutAttribute::.ctor() = (01 00 00 00)
    ldstr "hello"
    pop
    ldc.i4.1
    ret
  }
  .method private hidebysig newslot virtual final instance void Act() cil managed
  {
    .override Space.IThing::Do
    .custom instance void [mscorlib]System.ObsoleteAttribute::.ctor() = (01 00 00 00)
    ret
  }
  .method private hidebysig newslot virtual final instance int32 Take() cil managed
  {
    .override method instance !0 class Space.IOther`1<int32>::Get()
    .permissionset assert = (3C 00 50 00 65 00 72 00 6D 00 69 00 73 00 73 00 69 00 6F 00 6E 00 53 00 65 00 74 00 20 00 63 00 6C 00 61 00 73 00 73 00 3D 00 22 00 53 00 79 00 73 00 74 00 65 00 6D 00 2E 00 53 00 65 00 63 00 75 00 72 00 69 00 74 00 79 00 2E 00 50 00 65 00 72 00 6D 00 69 00 73 00 73 00 69 00 6F 00 6E 00 53 00 65 00 74 00 22 00 2F 00 3E 00)
    .locals init (int64 q)
    ldc.i4.2
    ret
  }
  .method public static !!0 Pick<M, (Space.IThing) N>(!!0 item) cil managed
  {
    ldarg.0
    ret
  }
  .method public static vararg void Many(int32 first) cil managed { ret }
  .method public static void Calls() cil managed
  {
    ldc.i4.1
    ldc.i4.2
    call vararg void Space.Derived`2::Many(int32, ..., int32)
    call void [.module second]Some.Kind::Run()

    .maxstack 4
    ldc.i4.3
    call !!0 class Space.Derived`2<class Space.Base, int32>::Pick<int32, class Space.IThing>(!!0)
    pop
    ldstr "a"
    call !!0 class Space.Derived`2<class Space.Base, int32>::Pick<string, class Space.IThing>(!!0)
    pop
    ret
  }
  .method public static pinvokeimpl("lib" as "entry" ansi winapi) int32 Outside(int32 marshal(bool) flag) cil managed preservesig { }
  .method public static pinvokeimpl("second" lasterr stdcall) int32 Another() cil managed preservesig { }
  .method public hidebysig specialname instance int32 get_Size() cil managed { ldc.i4.4 ret }
  .method public hidebysig specialname instance void set_Size(int32 'value') cil managed { ret }
  .method public hidebysig specialname instance void add_Done(class [mscorlib]System.EventHandler 'value') cil managed { ret }
  .method public hidebysig specialname instance void remove_Done(class [mscorlib]System.EventHandler 'value') cil managed { ret }
  .property instance int32 Size() = int32(9)
  {
    .custom instance void [mscorlib]System.ObsoleteAttribute::.ctor() = (01 00 00 00)
    .get instance int32 Space.Derived`2::get_Size()
    .set instance void Space.Derived`2::set_Size(int32)
  }
  .event [mscorlib]System.EventHandler Done
  {
    .custom instance void [mscorlib]System.ObsoleteAttribute::.ctor() = (01 00 00 00)
    .addon instance void Space.Derived`2::add_Done(class [mscorlib]System.EventHandler)
    .removeon instance void Space.Derived`2::remove_Done(class [mscorlib]System.EventHandler)
  }
  .class nested public auto ansi Small extends [mscorlib]System.Object { .class nested private auto ansi Tiny extends [mscorlib]System.Object { } }
}
.data D1 = int32(7)
.data D2 = int64(8)
