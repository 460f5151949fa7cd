import std.stdio;

int turns(int n)
{
    int s = 0;
    while (n > 0)
    {
        s = s + n;
        n = n - 1;
    }
    return s;
}

void main()
{
    writeln(turns(20000000));
}
