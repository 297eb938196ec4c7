module symdemangle

go 1.19
