import std.stdio;

int gcd(int a, int b)
{
    while (b != 0)
    {
        int rest = a % b;
        a = b;
        b = rest;
    }
    return a;
}

void main()
{
    writeln(gcd(1071, 462));
}
