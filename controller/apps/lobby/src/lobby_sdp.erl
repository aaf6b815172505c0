%%% @doc Session descriptions (RFC 4566): the callers' offers and answers, and our own (RFC 3264), of one audio stream
%%% with G.711. Other streams are declined. The gateway never sees a caller's description.
-module(lobby_sdp).

-export([parse/1, media/1, direction/1, warning/1, answer/4, offer/3]).
-export_type([session/0, direction/0, reason/0]).

%% The direction from the caller's point of view. `sendonly': the caller only sends.
-type direction() :: sendrecv | sendonly | recvonly | inactive.
-type stream() :: taken | {declined, Kind :: binary(), Transport :: binary(), Formats :: [binary()]}.
-record(session, {media :: lobby_h248:media(), direction :: direction(), streams :: [stream()]}).
-opaque session() :: #session{}.
-type reason() :: no_audio | no_common_format | bad_address | bad_packet_time | bad_syntax.

-define(MAX_STREAMS, 16).
-define(MAX_LINES, 500).

%% @doc Parses a caller's session description.
-spec parse(binary()) -> {ok, session()} | {error, reason()}.
parse(Text) ->
    case binary:split(Text, <<"\n">>, [global]) of
        Lines when length(Lines) =< ?MAX_LINES -> session(blocks([trim(Line) || Line <- Lines]));
        _ -> {error, bad_syntax}
    end.

session({Head, Blocks}) when length(Blocks) =< ?MAX_STREAMS ->
    Streams = [stream(Block) || Block <- Blocks],
    case lists:member(bad, Streams) of
        true -> {error, bad_syntax};
        false -> take([{Stream, audio(Stream, Lines, Head)} || {Stream, Lines} <- lists:zip(Streams, Blocks)])
    end;
session(_) ->
    {error, bad_syntax}.

%% Splits bytes at spaces, because a description needn't be valid UTF-8.
words(Text) ->
    binary:split(Text, <<" ">>, [global, trim_all]).

trim(Line) ->
    re:replace(Line, "[\r ]+$", "", [{return, binary}]).

%% Returns the lines before the first m= line, and a list of lines for each m= line.
blocks(Lines) ->
    lists:foldr(fun(First = <<"m=", _/binary>>, {Rest, Blocks}) -> {[], [[First | Rest] | Blocks]};
                   (Line, {Rest, Blocks}) -> {[Line | Rest], Blocks}
                end, {[], []}, Lines).

stream([<<"m=", Value/binary>> | _]) ->
    case words(Value) of
        [Kind, Port, Transport | Formats = [_ | _]] -> {Kind, port(Port), Transport, Formats};
        _ -> bad
    end.

%% Port ranges such as `4000/2' aren't supported.
port(Text) ->
    case string:to_integer(Text) of
        {Port, <<>>} when Port > 0, Port < 65536 -> Port;
        _ -> none
    end.

%% Takes the first stream that the gateway can serve, and declines the others.
take(Tried) ->
    case lists:splitwith(fun({_, Found}) -> element(1, Found) =:= error end, Tried) of
        {Before, [{_, {ok, Media, Direction}} | After]} ->
            Streams = declined(Before) ++ [taken | declined(After)],
            {ok, #session{media = Media, direction = Direction, streams = Streams}};
        {_, []} ->
            {error, hd([Reason || {_, {error, Reason}} <- Tried, Reason =/= no_audio] ++ [no_audio])}
    end.

declined(Tried) ->
    [{declined, Kind, Transport, Formats} || {{Kind, _, Transport, Formats}, _} <- Tried].

audio({<<"audio">>, Port, <<"RTP/AVP">>, Formats}, Lines, Head) when Port =/= none ->
    Common = [Format || Type <- Formats, Format <- format(Type)],
    case {Common, address(Lines ++ Head), lists:all(fun takes_20_ms/1, Lines)} of
        {[], _, _} -> {error, no_common_format};
        {_, none, _} -> {error, bad_address};
        {_, _, false} -> {error, bad_packet_time};
        {[Format | _], {0, 0, 0, 0}, true} -> {ok, {{{0, 0, 0, 0}, Port}, Format}, inactive};
        {[Format | _], Address, true} -> {ok, {{Address, Port}, Format}, direction_of(Lines ++ Head)}
    end;
audio(_, _, _) ->
    {error, no_audio}.

%% The gateway sends packets of 20 ms, and drops received packets of any other length. A phone that asks for another
%% length would also send packets of that length.
takes_20_ms(<<"a=ptime:", Ms/binary>>) -> string:to_integer(Ms) =:= {20, <<>>};
takes_20_ms(<<"a=maxptime:", Ms/binary>>) -> {Max, _} = string:to_integer(Ms), is_integer(Max) andalso Max >= 20;
takes_20_ms(_) -> true.

format(<<"0">>) -> [pcmu];
format(<<"8">>) -> [pcma];
format(_) -> [].

%% Returns the address, if it is a unicast IPv4 address: the gateway sends to no others.
address(Lines) ->
    case [Host || <<"c=", Value/binary>> <- Lines, [<<"IN">>, <<"IP4">>, Host] <- [words(Value)]] of
        [Host | _] -> case inet:parse_ipv4strict_address(binary_to_list(Host)) of
            {ok, Address = {First, _, _, _}} when First < 224 -> Address;
            _ -> none
        end;
        [] -> none
    end.

direction_of(Lines) ->
    hd([Direction || <<"a=", Value/binary>> <- Lines, Direction <- [sendrecv, sendonly, recvonly, inactive],
                     Value =:= atom_to_binary(Direction)] ++ [sendrecv]).

%% @doc Returns the address at which the caller receives media, and their format.
-spec media(session()) -> lobby_h248:media().
media(#session{media = Media}) -> Media.

%% @doc Returns the caller's direction, which is `inactive' if the caller holds with the address 0.0.0.0.
-spec direction(session()) -> direction().
direction(#session{direction = Direction}) -> Direction.

%% @doc Returns the headers that explain why an offer is rejected with 488 (RFC 3261, section 20.43).
-spec warning(reason() | foreign_address) -> [{warning, [{300..399, binary(), binary()}]}].
warning(Reason) ->
    {Code, Text} = case Reason of
        no_audio -> {304, "no audio over RTP/AVP"};
        no_common_format -> {305, "neither PCMU nor PCMA"};
        bad_address -> {301, "no unicast address of IPv4"};
        bad_packet_time -> {306, "packets must be of 20 ms"};
        bad_syntax -> {399, "no session description"};
        foreign_address -> {399, "media must go to the caller's own address"}
    end,
    [{warning, [{Code, <<"lobby">>, iolist_to_binary([$", Text, $"])}]}].

%% @doc Returns the answer to an offer. The answer's o= line gets the id and the version.
-spec answer(session(), Local :: lobby_h248:media(), Id :: non_neg_integer(), Version :: non_neg_integer()) -> binary().
answer(#session{direction = Direction, streams = Streams}, Local, Id, Version) ->
    description(Streams, Local, reversed(Direction), Id, Version).

%% @doc Returns our offer. It has one stream if the caller hasn't sent a description yet. Otherwise, the streams keep
%% their positions in the caller's description (RFC 3264, section 8).
-spec offer(session() | none, Local :: lobby_h248:media(), {Id :: non_neg_integer(), Version :: non_neg_integer()}) ->
          binary().
offer(none, Local, {Id, Version}) -> description([taken], Local, sendrecv, Id, Version);
offer(#session{streams = Streams}, Local, {Id, Version}) -> description(Streams, Local, sendrecv, Id, Version).

reversed(sendonly) -> recvonly;
reversed(recvonly) -> sendonly;
reversed(Direction) -> Direction.

description(Streams, {{Address, Port}, Format}, Direction, Id, Version) ->
    Host = inet:ntoa(Address),
    iolist_to_binary([
        io_lib:format("v=0\r\no=- ~b ~b IN IP4 ~s\r\ns=-\r\nc=IN IP4 ~s\r\nt=0 0\r\n", [Id, Version, Host, Host]),
        [stream(Stream, Port, Format, Direction) || Stream <- Streams]]).

stream({declined, Kind, Transport, Formats}, _, _, _) ->
    ["m=", Kind, " 0 ", Transport, [[" ", Format] || Format <- Formats], "\r\n"];
stream(taken, Port, Format, Direction) ->
    {Type, Name} = case Format of pcmu -> {0, "PCMU"}; pcma -> {8, "PCMA"} end,
    io_lib:format("m=audio ~b RTP/AVP ~b\r\na=rtpmap:~b ~s/8000\r\na=ptime:20\r\na=~s\r\n",
                  [Port, Type, Type, Name, Direction]).
