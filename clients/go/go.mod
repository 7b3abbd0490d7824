module walrus

go 1.19
