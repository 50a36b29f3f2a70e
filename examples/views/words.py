"""Which share of a text's words is long."""

def words(text):
    word = ""
    for c in text:
        if c != " ":
            word += c
        elif word:
            yield word
            word = ""
    if word:
        yield word

def count(text, size):
    n = 0
    for w in words(text):
        if len(w) >= size:
            n += 1
    return n

def share(text, size, total):
    try:
        return 100 * count(text, size) // total
    except ZeroDivisionError as e:
        print("no total:", e)
        return 0
    except TypeError:
        return None

def main(size, total):
    return share("the cat sat on the mat", size, total), share("a cow", size, total)
