module a; import b; import std.stdio;
static if (!is(typeof(x))) enum y = 1;
void main() { writeln(is(typeof(x)), is(typeof(y))); }
