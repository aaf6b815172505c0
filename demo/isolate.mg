MEGACO/1 [127.0.0.1]:2945
Transaction=2{Context=1{Topology{RTP/3,*,Isolate},ContextAudit{Topology}}}
