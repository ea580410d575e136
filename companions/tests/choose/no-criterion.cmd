choose --environment P
