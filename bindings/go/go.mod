module scq/v3

go 1.19
