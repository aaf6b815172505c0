MEGACO/1 [127.0.0.1]:2945
Transaction=1{Context=${
Add=${Media{LocalControl{Mode=SendReceive},Local{
v=0
c=IN IP4 $
m=audio $ RTP/AVP 0
},Remote{
v=0
c=IN IP4 127.0.0.1
m=audio 40000 RTP/AVP 0
}}},
Add=${Media{LocalControl{Mode=SendReceive},Local{
v=0
c=IN IP4 $
m=audio $ RTP/AVP 0
},Remote{
v=0
c=IN IP4 127.0.0.1
m=audio 40002 RTP/AVP 0
}}},
Add=${Media{LocalControl{Mode=SendReceive},Local{
v=0
c=IN IP4 $
m=audio $ RTP/AVP 0
},Remote{
v=0
c=IN IP4 127.0.0.1
m=audio 40004 RTP/AVP 0
}}}}}
