module fled

go 1.19

require fle v0.0.0

replace fle => ../contrib/go
