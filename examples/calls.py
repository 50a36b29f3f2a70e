def count(text, size):
    n = 0
    for c in text:
        if c == "a":
            n += 1
    return n // size

def f(n):
    try:
        print(count("ab", n))
    except ZeroDivisionError as e:
        print("caught", e)
    return n, count
