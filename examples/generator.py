def g(n):
    yield n
def f(n):
    for v in g(n):
        print(v)
    return 0
