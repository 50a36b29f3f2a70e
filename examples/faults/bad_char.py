def f(n):
    a = 1; b = 2
