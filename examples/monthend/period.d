10 yes
11 no
