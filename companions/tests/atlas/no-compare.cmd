atlas --classes 5
