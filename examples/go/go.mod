module nuvatsimo/seat

go 1.19
