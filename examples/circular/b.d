module b; import a;
static if (!is(typeof(y))) enum x = 1;
