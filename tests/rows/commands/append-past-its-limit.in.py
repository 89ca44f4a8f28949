# A text of 1,048,576 bytes, and one byte more than it may have.
half = "x" * 524_288
print("cluster 1")
print(f"at n0 APPEND b {half}")
print(f"at n0 APPEND b {half}")
print("at n0 APPEND b x")
print("at n0 STRLEN b")
