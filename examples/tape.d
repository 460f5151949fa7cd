// A small language on a tape of bytes: its programs become statements of D while this file is compiled.
import std.stdio;

string statement(char sign)
{
    switch (sign)
    {
        case '+': return "tape[at]++;";
        case '-': return "tape[at]--;";
        case '>': return "at++;";
        case '<': return "at--;";
        case '.': return "said ~= cast(char) tape[at];";
        case '[': return "while (tape[at] != 0) {";
        case ']': return "}";
        default: return "";
    }
}

string statements(string program)
{
    string code;
    foreach (sign; program) code ~= statement(sign);
    return code;
}

/// What a program on the tape says: one function for each program.
char[] run(string program)()
{
    ubyte[8] tape;
    int at;
    char[] said;
    mixin(statements(program));
    return said;
}

enum hello = "++++++++[>+++++++++>+++++++++++++>++++<<<-]>.>---.+++++++..+++.>++++++++++++.------------.<<----.>>+.";
enum greeting = run!hello();
static assert(greeting == "Hello, D!");

void main()
{
    writeln(greeting);
    writeln(run!hello() == greeting);
    writeln(statements("[>+<-]"));
}
