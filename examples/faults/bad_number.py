def f(n):
    return 012
