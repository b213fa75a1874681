module kitchenrue.example/guard

go 1.19
