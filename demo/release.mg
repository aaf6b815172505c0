MEGACO/1 [127.0.0.1]:2945
Transaction=3{Context=1{Topology{RTP/3,*,Bothway},ContextAudit{Topology}}}
