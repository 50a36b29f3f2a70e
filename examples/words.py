"""Word counter."""
SIZES = (1, 2, 4)

def fib(n):
    a, b = 0, 1
    for i in range(n):
        a, b = b, a + b
    return a

def words(text):
    word = ""
    for c in text:
        if c == " ":
            if word:
                yield word
            word = ""
        else:
            word += c
    if word:
        yield word

def count(text, size):
    n = 0
    for w in words(text):
        if len(w) >= size:
            n += 1
    return n

def main(k):
    total = 0
    for size in SIZES:
        try:
            total += count("the cat sat on the mat", size) // (k - size)
        except ZeroDivisionError as e:
            print("skip", size, e)
    return total, fib(k)
