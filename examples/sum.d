import std.stdio;

void main()
{
    writeln(1 + 2);
    writeln(2147483647 + 1);
    writeln(1 - 2 * 3);
}
