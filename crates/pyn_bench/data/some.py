def area(width: int, height: int) -> int:
    # the area of a rectangle
    return width * height
