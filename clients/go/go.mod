module ssikvd

go 1.19
