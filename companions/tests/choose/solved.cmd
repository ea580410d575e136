choose --environment identical --criterion lateness --releases --times unit
