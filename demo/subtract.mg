MEGACO/1 [127.0.0.1]:2945
Transaction=4{Context=1{Subtract=*}}
