main.o: main.s calls.mac tools.mac
