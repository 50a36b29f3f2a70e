def f(n):
    break
