koat-lasso 2
start 0 -1
step 1
loop
step 3
end
