def f0(n):
    t = 0
    for i in range(n):
        t += i
    return t
def f1(n):
    t = 1
    for i in range(n):
        t += i
    return t
def f2(n):
    t = 2
    for i in range(n):
        t += i
    return t
def go(n):
    s = 0
    s += f0(n)
    s += f1(n)
    s += f2(n)
    return s
