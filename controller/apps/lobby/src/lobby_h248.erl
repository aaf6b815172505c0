%%% @doc Converts requests to a gateway and its replies between plain terms and Megaco's text encoding (RFC 3525, Annex
%%% B), as far as a conference needs it. The codec is OTP's megaco.
-module(lobby_h248).

-include_lib("megaco/include/megaco.hrl").
-include_lib("megaco/include/megaco_message_v1.hrl").

-export([request/3, acknowledgement/2, check/0, decode/1]).
-export_type([endpoint/0, sender/0, format/0, media/0, mode/0, termination/0, context/0, name/0, settings/0, command/0,
              action/0, properties/0, result/0, reply/0, message/0, transaction/0, statistics/0]).

-type endpoint() :: {inet:ip4_address(), inet:port_number()}.
%% A gateway with a fence drops a message if it has run one with a higher number. Runs of an earlier release have an
%% address instead of a number.
-type sender() :: {Number :: pos_integer() | inet:ip4_address(), inet:port_number()}.
-type format() :: pcmu | pcma.
-type media() :: {endpoint(), format()}.
%% A mode from the gateway's point of view: with `recvOnly', the caller only talks, and with `sendOnly', the caller only
%% hears.
-type mode() :: inactive | sendOnly | recvOnly | sendRecv.
%% The number n of the termination RTP/n.
-type termination() :: pos_integer().
-type context() :: pos_integer().
%% `new' is `$': in a command, the termination that it creates; in a triple, the termination that the action's first Add
%% created.
-type name() :: termination() | new | all | root.
%% `local': the format that the caller is to send. The gateway chooses the address and the port.
-type settings() :: #{mode => mode(), local => format(), remote => media()}.
-type command() :: {add, settings()} | {add_optional, settings()} | {modify, termination(), settings()}
                 | {move, termination(), settings()}
                 | {subtract, termination() | all} | {subtract_optional, termination() | all}
                 | {audit, name(), [media | statistics]}.
%% `guard': a termination that must be in this context. Otherwise, the gateway rejects the guard's audit, and runs
%% nothing.
-type action() :: #{context := context() | new | null, commands => [command()], topology => [triple()],
                    audit_topology => boolean(), guard => {context(), termination()}}.
-type triple() :: lobby_topology:triple(termination() | new).
-type statistics() :: #{binary() => non_neg_integer()}.
-type properties() :: #{mode => mode(), local => media(), remote => media(), statistics => statistics()}.
-type result() :: {add | modify | move | subtract | audit | other, name() | unknown, properties() | {error, code()}}.
-type code() :: pos_integer().
%% `error': the gateway rejected the action as a whole, after the commands whose results are listed.
-type reply() :: #{context := context() | null | new, results := [result()], topology => [triple()], error => code()}.
-type transaction() :: 1..16#FFFFFFFF.
%% A message from a gateway. It has a reply for each action, up to the first rejected one.
-type message() :: {reply, transaction(), {ok, [reply()]} | {error, code()}} | {error, code()}.

-define(NONE, asn1_NOVALUE).

%% @doc Returns a message with one request, which has the guard, if any, and one action.
-spec request(sender(), transaction(), action()) -> binary().
request(Sender, Transaction, Action) ->
    Guards = [#{context => Context, commands => [{audit, T, []}]} || #{guard := {Context, T}} <- [Action]],
    Actions = [action_request(A) || A <- Guards ++ [Action]],
    message(Sender, [{transactionRequest, #'TransactionRequest'{transactionId = Transaction, actions = Actions}}]).

%% @doc Returns a message that acknowledges the replies to these transactions.
-spec acknowledgement(sender(), [transaction(), ...]) -> binary().
acknowledgement(Sender, Transactions) ->
    message(Sender, [{transactionResponseAck, [#'TransactionAck'{firstAck = T} || T <- Transactions]}]).

%% @doc Returns the message of `mg_bridge check', which every fence lets pass. The reply has the transaction number 1.
-spec check() -> binary().
check() -> <<"MEGACO/1 <check>\nTransaction=1{Context=-{AuditValue=ROOT}}">>.

message(Sender, Transactions) ->
    Message = #'Message'{version = 1, mId = id(Sender), messageBody = {transactions, Transactions}},
    {ok, Text} = megaco_compact_text_encoder:encode_message([], 1, #'MegacoMessage'{mess = Message}),
    Text.

id({Number, Port}) when is_integer(Number) ->
    {domainName, #'DomainName'{name = integer_to_list(Number) ++ ".lobby", portNumber = Port}};
id({Address, Port}) -> {ip4Address, #'IP4Address'{address = tuple_to_list(Address), portNumber = Port}}.

action_request(Action = #{context := Context}) ->
    #'ActionRequest'{contextId = context_id(Context),
                     contextRequest = context_request(maps:get(topology, Action, [])),
                     contextAttrAuditReq = context_audit(maps:get(audit_topology, Action, false)),
                     commandRequests = [command_request(C) || C <- maps:get(commands, Action, [])]}.

context_id(null) -> ?megaco_null_context_id;
context_id(new) -> ?megaco_choose_context_id;
context_id(Context) -> Context.

context_request([]) -> ?NONE;
context_request(Triples) ->
    #'ContextRequest'{topologyReq = [#'TopologyRequest'{terminationFrom = term_id(A), terminationTo = term_id(B),
                                                        topologyDirection = How} || {A, B, How} <- Triples]}.

context_audit(false) -> ?NONE;
context_audit(true) -> #'ContextAttrAuditRequest'{topology = 'NULL'}.

command_request({add_optional, Settings}) -> optional(command_request({add, Settings}));
command_request({subtract_optional, Name}) -> optional(command_request({subtract, Name}));
command_request({add, Settings}) -> amm(addReq, new, Settings);
command_request({modify, Name, Settings}) -> amm(modReq, Name, Settings);
command_request({move, Name, Settings}) -> amm(moveReq, Name, Settings);
command_request({subtract, Name}) ->
    %% An empty audit keeps the statistics out of the reply.
    command({subtractReq, #'SubtractRequest'{terminationID = [term_id(Name)],
                                             auditDescriptor = #'AuditDescriptor'{auditToken = []}}});
command_request({audit, Name, Words}) ->
    Tokens = [case Word of media -> mediaToken; statistics -> statsToken end || Word <- Words],
    command({auditValueRequest, #'AuditRequest'{terminationID = term_id(Name),
                                                auditDescriptor = #'AuditDescriptor'{auditToken = Tokens}}}).

command(Command) -> #'CommandRequest'{command = Command}.

optional(Command) -> Command#'CommandRequest'{optional = 'NULL'}.

amm(Tag, Name, Settings) ->
    command({Tag, #'AmmRequest'{terminationID = [term_id(Name)], descriptors = media_descriptor(Settings)}}).

media_descriptor(Settings) ->
    Given = maps:map(fun descriptor/2, Settings),
    Stream = #'StreamParms'{localControlDescriptor = maps:get(mode, Given, ?NONE),
                            localDescriptor = maps:get(local, Given, ?NONE),
                            remoteDescriptor = maps:get(remote, Given, ?NONE)},
    [{mediaDescriptor, #'MediaDescriptor'{streams = {oneStream, Stream}}}].

descriptor(mode, Mode) -> #'LocalControlDescriptor'{streamMode = Mode};
descriptor(local, Format) -> description("$", "$", Format);
descriptor(remote, {{Address, Port}, Format}) -> description(inet:ntoa(Address), integer_to_list(Port), Format).

description(Address, Port, Format) ->
    Lines = [{"v", "0"}, {"c", "IN IP4 " ++ Address}, {"m", "audio " ++ Port ++ " RTP/AVP " ++ payload_type(Format)}],
    #'LocalRemoteDescriptor'{propGrps = [[#'PropertyParm'{name = Name, value = [Value]} || {Name, Value} <- Lines]]}.

payload_type(pcmu) -> "0";
payload_type(pcma) -> "8".

term_id(new) -> #megaco_term_id{contains_wildcards = true, id = ["$"]};
term_id(all) -> #megaco_term_id{contains_wildcards = true, id = ["*"]};
term_id(root) -> #megaco_term_id{id = ["root"]};
term_id(Number) -> #megaco_term_id{id = ["rtp", integer_to_list(Number)]}.

%% @doc Decodes a message from a gateway: one reply, or the error that answers a whole message. Any other message is
%% `not_understood'.
-spec decode(binary()) -> {ok, message()} | {error, not_understood}.
decode(Text) ->
    case megaco_compact_text_encoder:decode_message([], dynamic, Text) of
        {ok, #'MegacoMessage'{mess = #'Message'{messageBody = Body}}} -> body(Body);
        {error, _} -> {error, not_understood}
    end.

body({messageError, #'ErrorDescriptor'{errorCode = Code}}) -> {ok, {error, Code}};
body({transactions, [{transactionReply, #'TransactionReply'{transactionId = Id, transactionResult = Result}}]}) ->
    case Result of
        {transactionError, #'ErrorDescriptor'{errorCode = Code}} -> {ok, {reply, Id, {error, Code}}};
        {actionReplies, Actions} -> {ok, {reply, Id, {ok, [action_reply(Action) || Action <- Actions]}}}
    end;
body(_) -> {error, not_understood}.

action_reply(Action) ->
    #'ActionReply'{contextId = Id, errorDescriptor = Error, contextReply = Properties,
                   commandReply = Commands} = Action,
    Parts = [#{context => context_of(Id), results => [command_reply(C) || C <- Commands]},
             topology_of(Properties), error_of(Error)],
    lists:foldl(fun maps:merge/2, #{}, Parts).

context_of(?megaco_null_context_id) -> null;
context_of(?megaco_choose_context_id) -> new;
context_of(Id) -> Id.

topology_of(#'ContextRequest'{topologyReq = Triples}) when is_list(Triples) ->
    #{topology => [{name_of(A), name_of(B), How} || #'TopologyRequest'{terminationFrom = A, terminationTo = B,
                                                                       topologyDirection = How} <- Triples]};
topology_of(_) -> #{}.

error_of(#'ErrorDescriptor'{errorCode = Code}) -> #{error => Code};
error_of(_) -> #{}.

command_reply({addReply, Reply}) -> amms_reply(add, Reply);
command_reply({modReply, Reply}) -> amms_reply(modify, Reply);
command_reply({moveReply, Reply}) -> amms_reply(move, Reply);
command_reply({subtractReply, Reply}) -> amms_reply(subtract, Reply);
command_reply({auditValueReply, {auditResult, #'AuditResult'{terminationID = Id, terminationAuditResult = Audit}}}) ->
    {audit, name_of(Id), audit_of(Audit)};
command_reply({auditValueReply, {contextAuditResult, [Id]}}) -> {audit, name_of(Id), #{}};
command_reply(_) -> {other, unknown, #{}}.

amms_reply(Word, #'AmmsReply'{terminationID = [Id | _], terminationAudit = Audit}) ->
    {Word, name_of(Id), audit_of(Audit)}.

audit_of(?NONE) -> #{};
audit_of(Descriptors) ->
    case lists:keyfind(errorDescriptor, 1, Descriptors) of
        {_, #'ErrorDescriptor'{errorCode = Code}} -> {error, Code};
        false -> lists:foldl(fun maps:merge/2, #{}, [descriptor_of(D) || D <- Descriptors])
    end.

descriptor_of({mediaDescriptor, #'MediaDescriptor'{streams = {multiStream, [Descriptor]}}}) ->
    #'StreamDescriptor'{streamParms = Stream} = Descriptor,
    #'StreamParms'{localControlDescriptor = Control, localDescriptor = Local, remoteDescriptor = Remote} = Stream,
    maps:from_list([{mode, Mode} || #'LocalControlDescriptor'{streamMode = Mode} <- [Control]] ++
                   [{local, Media} || Media <- media_of(Local)] ++ [{remote, Media} || Media <- media_of(Remote)]);
descriptor_of({statisticsDescriptor, Parameters}) ->
    Counts = [{list_to_binary(Name), string:to_integer(Value)}
              || #'StatisticsParameter'{statName = Name, statValue = [Value]} <- Parameters],
    #{statistics => maps:from_list([{Name, Count} || {Name, {Count, []}} <- Counts])};
descriptor_of(_) -> #{}.

%% Returns the media in a session description of the gateway, or an empty list.
media_of(#'LocalRemoteDescriptor'{propGrps = [Lines | _]}) ->
    Value = fun(Letter) -> hd([V || #'PropertyParm'{name = N, value = [V]} <- Lines, N =:= Letter] ++ [""]) end,
    case {string:lexemes(Value("c"), " "), string:lexemes(Value("m"), " ")} of
        {["IN", "IP4", Host], ["audio", Port, "RTP/AVP", Type]} ->
            [{{Address, Number}, Format} || {ok, Address} <- [inet:parse_ipv4strict_address(Host)],
                                            {Number, []} <- [string:to_integer(Port)], Format <- format_of(Type)];
        _ -> []
    end;
media_of(_) -> [].

format_of("0") -> [pcmu];
format_of("8") -> [pcma];
format_of(_) -> [].

name_of(#megaco_term_id{id = ["rtp", Number]}) ->
    case string:to_integer(Number) of {N, []} -> N; _ -> unknown end;
name_of(#megaco_term_id{id = ["root"]}) -> root;
name_of(#megaco_term_id{id = ["$"]}) -> new;
name_of(#megaco_term_id{id = ["*"]}) -> all;
name_of(_) -> unknown.
