// Contracts as they are written in C#, one to a method, each with the clauses that are meant or the rule that refuses it.
//
// Each part begins with a line `// == NAME: EXPECTED`. EXPECTED lists the clause lines' kinds in their order (`requires ensures`), or is
// `none`, or `refused RULE`; behind `optimised:` stands what an optimised build gives where it differs. `support` is compiled with each.
// `try_idioms.py` compiles and lists them.

// == support
using System;
using System.Collections.Generic;
using System.Diagnostics.Contracts;
using System.IO;
using System.Linq;
using System.Threading.Tasks;

public struct Point {
    public int X;
    public int Y { get { return X; } }
    public Point(int x) { X = x; }
}

public class Base {
    protected int value;
    public Base() { }
    public Base(int a) { value = a; }
    public Base(Func<int> f) { value = f(); }
    public virtual int Get() { return value; }
}

public partial class Idiom : Base {
    int field = 3;
    int? maybe = 4;
    int? Maybe { get { return maybe; } }
    Point point = new Point(1);
    Point Place { get { return point; } }
    static readonly string text = "m";
    const string constant = "c";
    int[] items = new int[4];
    string name = "n";
    public int Number { get; set; }
    static void Fail() { throw new ArgumentException(); }
}

// == greater: requires
public static int Method(int x) { Contract.Requires(x > 0); return x; }

// == greater_or_equal: requires
public static int Method(int x) { Contract.Requires(x >= 0); return x; }

// == and: requires
public static int Method(int x, int y) { Contract.Requires(x > 0 && y > 0); return x; }

// == or: requires
public static int Method(int x, int y) { Contract.Requires(x > 0 || y > 0); return x; }

// == not: requires
public static int Method(bool b) { Contract.Requires(!b); return 1; }

// == not_of_and: requires
public static int Method(int x, int y) { Contract.Requires(!(x > 0 && y > 0) || x != y); return x; }

// == conditional_expression: requires
public static int Method(int x, bool b) { Contract.Requires(b ? x > 0 : x < 0); return x; }

// == nested_conditional_expression: requires
public static int Method(int x) { Contract.Requires((x > 0 ? (x < 5 ? 1 : 2) : 3) == 1); return x; }

// == implication: requires
public static int Method(bool b, object o) { Contract.Requires(!b || o != null); return 1; }

// == null_coalescing: requires
public static int Method(string s) { Contract.Requires((s ?? "").Length > 0); return 1; }

// == null_conditional: requires
public static string Method(string s) { Contract.Requires(s?.Length > 0); return s; }

// == comparison_of_strings: requires
public static int Method(string s) { Contract.Requires(s == "a" || s != "b"); return 1; }

// == comparison_unsigned: requires
public static int Method(long x, uint u, byte b) { Contract.Requires(x >= 0 && u >= 3 && b <= 9); return 1; }

// == comparison_of_decimals: requires
public static int Method(decimal d) { Contract.Requires(d > 0m); return 1; }

// == comparison_of_doubles: requires
public static int Method(double d) { Contract.Requires(d > 0.5 && !double.IsNaN(d)); return 1; }

// == checked_sum: requires
public static int Method(int x) { Contract.Requires(checked(x + 1) > 0); return x; }

// == type_test: requires
public static int Method(object o) { Contract.Requires(o is string); return 1; }

// == enum_is_defined: requires
public static int Method(DayOfWeek d) { Contract.Requires(Enum.IsDefined(typeof(DayOfWeek), d)); return 1; }

// == call_of_a_library: requires
public static int Method(string s) { Contract.Requires(!string.IsNullOrEmpty(s) && s[0] == 'a'); return s.Length; }

// == nullable_argument: requires ensures
public static int? Method(int? x) {
    Contract.Requires(x.HasValue && x.Value > 0);
    Contract.Ensures(Contract.Result<int?>().HasValue);
    return x;
}

// == struct_argument: requires
public static int Method(Point p) { Contract.Requires(p.X > 0 && new Point(1).X > 0); return 1; }

// == generic_method: requires ensures
public static T Method<T>(T x) where T : class {
    Contract.Requires(x != null);
    Contract.Ensures(Contract.Result<T>() != null);
    return x;
}

// == increment_in_the_condition: requires
public static int Method(int x) { Contract.Requires(x++ > 0); return x; }

// == assignment_in_the_condition: requires
public static int Method(string s) { int n; Contract.Requires((n = s.Length) > 0 && n < 9); return 1; }

// == array_with_initializer: requires
public static int Method(int x) { Contract.Requires(Array.IndexOf(new[] { 1, 2, 3 }, x) >= 0); return x; }

// == collection_with_initializer: requires
public static int Method(string s) { Contract.Requires(new HashSet<string> { "a", "b" }.Contains(s)); return 1; }

// == object_with_initializer: requires
public static int Method(int x) { Contract.Requires(new Idiom { Number = x }.Number > 0); return 1; }

// == bool_in_a_local: requires
public static int Method(int x) { bool ok = x > 0; Contract.Requires(ok); return x; }

// == local_used_by_the_rest: refused C6
public static int Method(int x) { int y = x * 2; Contract.Requires(y > 0); return y; }

// == locals_of_two_segments: requires requires
public static int Method(int x) {
    int y = x * 2;
    Contract.Requires(y > 0);
    int z = x + 1;
    Contract.Requires(z > 2);
    return x;
}

// == struct_local_used_by_the_rest: refused C6
public static int Method(int x) { var p = new Point(x); Contract.Requires(p.Y > 0); return p.Y; }

// == out_argument_used_by_the_rest: refused C6
public static int Method(string s) { int n; Contract.Requires(int.TryParse(s, out n)); return n; }

// == out_argument_of_the_condition: requires
public static int Method(string s) { int n; Contract.Requires(int.TryParse(s, out n) && n > 0); return 1; }

// == temporary_of_two_segments: requires requires
public int Method() { Contract.Requires(Maybe.HasValue); Contract.Requires(Maybe.Value > 0); return 1; }

// == message: requires
public static int Method(int x) { Contract.Requires(x > 0, "positive"); return x; }

// == message_of_a_field: requires
public static int Method(int x) { Contract.Requires(x > 0, text); return x; }

// == message_of_a_constant: requires
public static int Method(int x) { Contract.Requires(x > 0, constant); return x; }

// == message_that_is_a_sum: requires
public static int Method(int x) { Contract.Requires(x > 0, "got " + x); return x; }

// == message_by_a_condition: requires
public static int Method(int x) { Contract.Requires(x > 0, x == 0 ? "zero" : "negative"); return x; }

// == message_interpolated: requires
public static int Method(int x) { Contract.Requires(x > 0, $"x is {x}"); return x; }

// == exception_of_requires: requires
public static int Method(string s) { Contract.Requires<ArgumentNullException>(s != null); return 1; }

// == exception_of_requires_with_a_message: requires requires
public static int Method(string s) {
    Contract.Requires<ArgumentNullException>(s != null, "s");
    Contract.Requires(s.Length > 0);
    return 1;
}

// == exception_of_requires_that_is_none: refused C7
public static int Method<E>(string s) where E : Exception { Contract.Requires<E>(s != null); return 1; }

// == result: ensures
public static int Method(int x) { Contract.Ensures(Contract.Result<int>() > 0); return x; }

// == result_converted: ensures
public static long Method(int x) { Contract.Ensures((int)Contract.Result<long>() > 0); return x; }

// == result_cast: ensures
public static object Method(object o) { Contract.Ensures(((string)Contract.Result<object>()).Length > 0); return o; }

// == result_twice: ensures
public static string Method(string s) {
    Contract.Ensures(Contract.Result<string>() != null && Contract.Result<string>().Length > 0);
    return s;
}

// == result_is_a_bool: ensures ensures
public static bool Method(int x) {
    Contract.Ensures(Contract.Result<bool>() == (x > 0));
    Contract.Ensures(!Contract.Result<bool>() || x > 0, "only where positive");
    return x > 0;
}

// == result_is_a_struct: ensures
public static Point Method() { Contract.Ensures(Contract.Result<Point>().Y > 0); return new Point(1); }

// == result_of_a_collection: ensures
public static List<int> Method(int k) {
    Contract.Ensures(Contract.Result<List<int>>() != null && Contract.Result<List<int>>().Count == Contract.OldValue(k));
    return new List<int>(k);
}

// == result_in_a_method_without: refused C3
public static void Method() { Contract.Ensures(Contract.Result<int>() > 0); }

// == result_in_requires: refused C3
public static int Method() { Contract.Requires(Contract.Result<int>() > 0); return 1; }

// == old_field: ensures
public int Method(int n) { Contract.Ensures(field == Contract.OldValue(field) + n); field += n; return field; }

// == old_property: ensures
public int Method(int n) { Contract.Ensures(Number == Contract.OldValue(Number) + n); Number += n; return Number; }

// == old_element: ensures
public int Method(int i) { Contract.Ensures(items[i] == Contract.OldValue(items[i]) + 1); return ++items[i]; }

// == old_argument: ensures
public static int Method(int x) { Contract.Ensures(Contract.Result<int>() > Contract.OldValue(x)); x++; return x; }

// == old_call: ensures
public int Method() { Contract.Ensures(Get() == Contract.OldValue(Get())); return 1; }

// == old_nested_call: ensures
public int Method(int x) {
    Contract.Ensures(Math.Max(Contract.OldValue(Math.Max(x, field)), 0) <= Math.Max(Contract.Result<int>(), 9));
    return x;
}

// == old_three_times: ensures
public static int Method(int x, int y) {
    Contract.Ensures(Contract.Result<int>() == Contract.OldValue(x + y) + Contract.OldValue(x) * Contract.OldValue(y));
    return x;
}

// == old_conditional_expression: ensures
public static int Method(int x, bool b) { Contract.Ensures(Contract.Result<int>() >= Contract.OldValue(b ? x : 0)); return x; }

// == old_and: ensures
public static int Method(int x, int y) {
    Contract.Ensures(!Contract.OldValue(x > 0 && y > 0) || Contract.Result<int>() > 0);
    return x;
}

// == old_null_coalescing: ensures
public static int Method(string s) { Contract.Ensures(Contract.Result<int>() == Contract.OldValue(s ?? "").Length); return 0; }

// == old_in_a_local: ensures
public static int Method(int x) { int o = Contract.OldValue(x); Contract.Ensures(Contract.Result<int>() > o); return x; }

// == old_of_a_local: refused C4
public static int Method(int x) { int y = x + 1; Contract.Ensures(Contract.Result<int>() > Contract.OldValue(y)); return x; }

// == old_that_throws: ensures
public static int Method(int x) { Contract.Ensures(Contract.OldValue(10 / x) > 0); return x; }

// == old_copy_of_an_array: ensures
public static int Method(int[] xs) { Contract.Ensures(Contract.OldValue((int[])xs.Clone()).Length == xs.Length); return 1; }

// == old_struct: ensures
public static int Method(Point p) { Contract.Ensures(Contract.OldValue(p).X == p.X && Contract.OldValue(p).Y > 0); return 1; }

// == old_property_of_a_property: refused C4
public int Method() { Contract.Ensures(Place.Y == Contract.OldValue(Place.Y)); return 1; }

// == old_has_value: refused C4
public int Method() { Contract.Ensures(Maybe.HasValue == Contract.OldValue(Maybe.HasValue)); return 1; }

// == old_in_requires: refused C3
public static int Method(int x) { Contract.Requires(Contract.OldValue(x) > 0); return x; }

// == old_within_old: refused C4
public static int Method(int x) { Contract.Ensures(Contract.OldValue(Contract.OldValue(x) + 1) > 0); return x; }

// == value_at_return_of_out: ensures
public static void Method(out int r) { Contract.Ensures(Contract.ValueAtReturn(out r) > 0); r = 1; }

// == value_at_return_of_ref: ensures
public static void Method(ref int r) { Contract.Ensures(Contract.ValueAtReturn(out r) > Contract.OldValue(r)); r++; }

// == value_at_return_of_two: ensures ensures
public static void Method(out int a, out int b) {
    Contract.Ensures(Contract.ValueAtReturn(out a) > 0);
    Contract.Ensures(Contract.ValueAtReturn<int>(out b) > Contract.ValueAtReturn(out a));
    a = 1;
    b = 2;
}

// == ref_parameter: requires ensures
public static int Method(ref int x) {
    Contract.Requires(x > 0);
    Contract.Ensures(x == Contract.OldValue(x) + 1);
    return x++;
}

// == ensures_on_throw: throws
public static void Method(int x) {
    Contract.EnsuresOnThrow<ArgumentException>(x > 0);
    if (x == 0) throw new ArgumentException();
}

// == ensures_on_throw_with_old: throws
public static void Method(int x) {
    Contract.EnsuresOnThrow<ArgumentException>(Contract.OldValue(x) > 0, "m");
    if (x == 0) throw new ArgumentException();
}

// == result_in_ensures_on_throw: refused C3
public static int Method(int x) { Contract.EnsuresOnThrow<Exception>(Contract.Result<int>() > 0); return x; }

// == for_all: requires
public static int Method(int[] xs) { Contract.Requires(Contract.ForAll(xs, x => x > 0)); return 1; }

// == for_all_of_a_range: requires
public static int Method(int[] xs) { Contract.Requires(Contract.ForAll(0, xs.Length, i => xs[i] > 0)); return 1; }

// == for_all_behind_another: requires requires
public static int Method(int[] xs) {
    Contract.Requires(xs != null);
    Contract.Requires(Contract.ForAll(0, xs.Length, i => xs[i] > 0));
    return xs.Length;
}

// == exists_of_an_argument: requires
public static int Method(int[] xs, int k) { Contract.Requires(Contract.Exists(xs, x => x == k)); return 1; }

// == for_all_of_the_result: ensures
public static int[] Method(int n) { Contract.Ensures(Contract.ForAll(Contract.Result<int[]>(), x => x > 0)); return new[] { n }; }

// == result_within_a_lambda: refused C3
public static int Method(int[] xs) { Contract.Ensures(Contract.Exists(xs, x => x == Contract.Result<int>())); return xs[0]; }

// == for_all_over_a_field: requires
public int Method(int k) { Contract.Requires(Contract.ForAll(0, items.Length, i => items[i] < k)); return k; }

// == for_all_over_fields_alone: requires
public int Method() { Contract.Requires(Contract.ForAll(0, items.Length, i => items[i] < field)); return field; }

// == two_closures: requires requires
public static int Method(int[] xs, int a, int b) {
    Contract.Requires(Contract.ForAll(xs, x => x > a));
    Contract.Requires(Contract.ForAll(xs, x => x < b));
    return 1;
}

// == closure_of_the_rest: requires
public static Func<int> Method(int x) { Contract.Requires(x > 0); return () => x; }

// == for_all_in_for_all: requires
public static int Method(int[][] xs) {
    Contract.Requires(Contract.ForAll(0, xs.Length, i => Contract.ForAll(0, xs[i].Length, j => xs[i][j] > i)));
    return 1;
}

// == old_for_all: refused C6
public static int Method(int[] xs, int k) { Contract.Ensures(Contract.OldValue(Contract.ForAll(xs, x => x > k)) || k > 0); return 1; }

// == old_beside_a_closure: ensures
public static int Method(int[] xs, int k) {
    Contract.Ensures(Contract.ForAll(xs, x => x > k) || Contract.OldValue(xs.Length) > 0);
    return k;
}

// == old_of_what_a_lambda_captures: refused C6
public static int Method(int[] xs, int k) {
    Contract.Ensures(Contract.ForAll(xs, x => x > k) || Contract.OldValue(k) > 0);
    return k;
}

// == closure_of_a_local: requires
public static int Method(int[] xs) { int limit = 3; Contract.Requires(Contract.ForAll(xs, x => x > limit)); return limit; }

// == closure_of_a_computed_local: refused C6
public static int Method(int[] xs) { int limit = xs.Length; Contract.Requires(Contract.ForAll(xs, x => x > limit)); return 1; }

// == closure_and_a_nested_one: requires
public static int Method(int[] xs, int k) {
    Contract.Requires(Contract.ForAll(xs, x => x > k));
    int s = 0;
    foreach (var y in xs) { int z = y; Func<int> g = () => z + k; s += g(); }
    return s;
}

// == closure_of_an_argument_that_changes: ensures
public static int Method(int[] xs, int k) { Contract.Ensures(Contract.ForAll(xs, x => x > k)); k++; return k; }

// == closure_behind_an_if_throw: requires
public static int Method(int[] xs, int k) {
    if (xs == null) throw new ArgumentNullException();
    Contract.Requires(Contract.ForAll(xs, x => x > k));
    return k;
}

// == query: requires
public static int Method(IEnumerable<int> xs, int k) { Contract.Requires(xs.Any(x => x > k)); return 1; }

// == lambda_called: requires
public static int Method(int x) { Func<int> g = () => x; Contract.Requires(g() > 0); return 1; }

// == if_throw: none
public static int Method(string s) { if (s == null) throw new ArgumentNullException("s"); Contract.EndContractBlock(); return s.Length; }

// == two_if_throws: none
public static int Method(string s, int i) {
    if (s == null) throw new ArgumentNullException("s");
    if (i < 0 || i >= s.Length) throw new ArgumentOutOfRangeException("i");
    Contract.EndContractBlock();
    return s[i];
}

// == if_throw_before_requires: requires
public static int Method(string s) {
    if (s == null) { throw new ArgumentNullException("s"); }
    Contract.Requires(s.Length > 0);
    return s.Length;
}

// == if_else_throw: none
public static int Method(int x) { if (x > 0) { x = 1; } else { throw new ArgumentException(); } Contract.EndContractBlock(); return x; }

// == throw_behind_requires: requires
public static int Method(string s, int x) { Contract.Requires(x > 0); if (s == null) throw new ArgumentNullException(); return 1; }

// == throw_between_two: refused C2
public static int Method(string s, int x) {
    Contract.Requires(x > 0);
    if (s == null) throw new ArgumentNullException();
    Contract.EndContractBlock();
    return 1;
}

// == return_before_requires: refused C1 optimised: refused C2
public static int Method(int x) { if (x == 0) return 0; Contract.Requires(x > 0); return x; }

// == return_in_the_lead_in: refused C5 optimised: requires
public static int Method(int x) {
    if (x == 1) return 9;
    if (x < 0) throw new ArgumentException();
    Contract.Requires(x > 2);
    return x;
}

// == statement_before_requires: requires
public static int Method(int x) { Console.Write(x); Contract.Requires(x > 0); return x; }

// == requires_under_an_if: refused C1
public static int Method(int x) { if (x > 3) Contract.Requires(x < 9); return x; }

// == loop_before_requires: requires
public static int Method(int[] xs) { int s = 0; for (int i = 0; i < xs.Length; i++) s += xs[i]; Contract.Requires(s > 0); return 1; }

// == parse_in_the_lead_in: refused C6
public static int Method(string s) {
    int n;
    if (!int.TryParse(s, out n)) throw new FormatException();
    Contract.Requires(n > 0);
    return n;
}

// == argument_assigned_before: requires
public static int Method(int x) { x = x + 1; Contract.Requires(x > 1); return x; }

// == helper_that_throws: refused C2
public static int Method(string s) { if (s == null) Fail(); Contract.EndContractBlock(); return 1; }

// == end_of_block_alone: none
public static int Method(int x) { Contract.EndContractBlock(); return x; }

// == end_of_block_behind_requires: requires
public static int Method(int x) { Contract.Requires(x > 0); Contract.EndContractBlock(); return x; }

// == try_around_requires: refused C2
public static int Method(int x) { try { Contract.Requires(x > 0); return x; } finally { x = 0; } }

// == lock_before_requires: refused C2
public static void Method(object o) { lock (o) { } Contract.Requires(o != null); }

// == while_with_a_throw: requires
public static int Method(int x) {
    while (x > 5) { x--; if (x == 7) throw new ArgumentException(); }
    Contract.Requires(x > 2);
    return x;
}

// == try_with_a_throw_in_the_lead_in: requires
public static int Method(string s) {
    try { if (s.Length == 0) throw new ArgumentException(); } catch (NullReferenceException) { throw; }
    Contract.Requires(s.Length > 1);
    return 1;
}

// == switch_in_the_lead_in: requires
public static int Method(int x) {
    switch (x) { case 1: throw new Exception(); case 2: break; case 3: x = 4; break; }
    Contract.Requires(x > 0);
    return x;
}

// == base_constructor: requires ensures
public Idiom(int a) : base(a > 0 ? a : 1) { Contract.Requires(a > 1); Contract.Ensures(field == 3); field = 3; }

// == own_constructor: requires
public Idiom(int a) : base(a) { }
public Idiom(int a, int b) : this(a + b) { Contract.Requires(b > 1); }

// == base_constructor_and_an_if_throw: none
public Idiom(string s) : base(s.Length) { if (s == null) throw new ArgumentNullException("s"); Contract.EndContractBlock(); }

// == base_constructor_that_takes_a_lambda: refused C6
public Idiom(int a) : base(() => a) { Contract.Requires(a > 0); field = a; }

// == constructor_with_for_all: requires
public Idiom(int[] xs, int k) { Contract.Requires(Contract.ForAll(xs, x => x > k)); field = k; }

// == constructor_of_a_struct: requires requires
public struct Pair {
    public int X;
    public Pair(int x) { Contract.Requires(x > 0); X = x; }
    public Pair(int a, int b) : this(a) { Contract.Requires(b > 0); }
}

// == using_in_the_rest: requires
public static int Method(int x) { Contract.Requires(x > 0); using (var s = new MemoryStream()) { s.WriteByte(1); return x; } }

// == lock_in_the_rest: requires
public static int Method(object o) { Contract.Requires(o != null); lock (o) { return 1; } }

// == foreach_in_the_rest: requires ensures
public static int Method(List<int> xs) {
    Contract.Requires(xs != null);
    Contract.Ensures(Contract.Result<int>() >= 0);
    int s = 0;
    foreach (var x in xs) s += x;
    return s;
}

// == catch_in_the_rest: requires
public static int Method(int x) { Contract.Requires(x > 0); try { return 1 / x; } catch (Exception) { return 0; } }

// == switch_in_the_rest: requires
public static int Method(int x) {
    Contract.Requires(x > 0);
    switch (x) { case 1: return 2; case 2: return 3; case 3: return 7; default: return 4; }
}

// == loops_in_the_rest: requires requires
public static int Method(int x, int y) {
    Contract.Requires(x > 0);
    Contract.Requires(y > 0);
    while (x > 3) { x--; }
    do { y--; } while (y > 3);
    again: x--;
    if (x > 3) goto again;
    return x;
}

// == endless_loop_in_the_rest: requires
public static int Method(int x) { Contract.Requires(x > 0); while (true) { if (x++ > 9) return x; } }

// == rest_that_throws: requires
public static int Method(int x) { Contract.Requires(x > 0); throw new NotImplementedException(); }

// == empty_rest: requires
public static void Method(int x) { Contract.Requires(x > 0); }

// == assert: assert
public static int Method(int x) { Contract.Assert(x > 0); return x; }

// == assert_and_assume: assume assert
public static int Method(int x) { Contract.Assume(x > 0, "y"); Contract.Assert(x > 1); return x; }

// == assert_before_requires: requires assert
public static int Method(int x) { Contract.Assert(x > 0); Contract.Requires(x > 0); return x; }

// == assert_in_a_loop: assert
public static int Method(int[] xs) { for (int i = 0; i < xs.Length; i++) Contract.Assert(xs[i] > 0); return 1; }

// == assert_in_a_lambda: assert
public static int Method(int x) { Func<int, int> g = y => { Contract.Assert(y > x); return y; }; return g(x); }

// == assert_in_an_iterator: assert
public static IEnumerable<int> Method(int n) { for (int i = 0; i < n; i++) { Contract.Assert(i >= 0, "i"); yield return i; } }

// == requires_in_an_iterator: refused C1
public static IEnumerable<int> Method(int n) { Contract.Requires(n > 0); yield return n; }

// == requires_in_an_async_method: refused C2
public static async Task<int> Method(int x) { Contract.Requires(x > 0); await Task.Delay(1); return x; }

// == assert_with_a_made_message: assert
public static int Method(int x) { Contract.Assert(x > 0, string.Format("{0}", x)); return x; }

// == property: ensures requires ensures
public int Property {
    get { Contract.Ensures(Contract.Result<int>() >= 0); return field; }
    set { Contract.Requires(value > 0); Contract.Ensures(field == value); field = value; }
}

// == indexer: requires
public int this[int i] { get { Contract.Requires(i >= 0); return i; } }

// == operator: requires ensures
public static Idiom operator +(Idiom a, Idiom b) {
    Contract.Requires(a != null && b != null);
    Contract.Ensures(Contract.Result<Idiom>() != null);
    return a;
}

// == event: requires
public event Action Changed { add { Contract.Requires(value != null); } remove { } }

// == finalizer: assert
~Idiom() { Contract.Assert(field >= 0); }

// == class_constructor: assert
static Idiom() { Contract.Assert(true); }
