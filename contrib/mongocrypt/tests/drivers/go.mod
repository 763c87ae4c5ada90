module mongocrypt_tests

go 1.19

require fled v0.0.0

require fle v0.0.0 // indirect

replace fled => ../../../../services

replace fle => ../../../go
