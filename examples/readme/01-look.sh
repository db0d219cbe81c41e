tools/look < examples/cascade.txt
