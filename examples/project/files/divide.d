divide.o: divide.s calls.mac
