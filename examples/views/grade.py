def grade(points):
    if points < 0:
        raise ValueError("negative")
    if points < 50:
        return "fail"
    return "pass"

def main(points):
    try:
        return grade(points)
    except ValueError as e:
        print("refused:", e)
