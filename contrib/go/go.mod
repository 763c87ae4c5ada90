module fle

go 1.19
