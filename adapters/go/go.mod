module snap

go 1.19
