multiply.o: multiply.s calls.mac
