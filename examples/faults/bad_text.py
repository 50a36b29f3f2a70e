def f(n):
    return "a\q"
