matches triangle
