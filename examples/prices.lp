koat-lp 1
cols 2
first 1 2
second 0 0
row 1 1 = 3
end
