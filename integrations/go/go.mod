module vizhoniku

go 1.19
