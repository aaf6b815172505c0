%% A headless Chromium for tests. It reads commands of the DevTools protocol from a pipe, and exits when the pipe
%% closes. Its pages keep each packet that they receive, decrypted but not yet decoded.
-module(chromium).

-export([start/2, stop/1, tab/1, close/1, open/2, value/2, text/1, key/2, press/2, packets/1, ask/3, microphone/3]).

%% Milliseconds after which a command counts as failed, even on a busy machine.
-define(LIMIT, 120000).

-record(browser, {pid, session}).

%% A script that runs before a page's own scripts. It turns off the processing of the microphone's sound, which would
%% take a tone for noise.
-define(PROBE, "
window.packets = []; window.made = 0;
const see = (end, seen) => { const { readable, writable } = end.createEncodedStreams();
  readable.pipeThrough(new TransformStream({ transform(frame, out) { seen(frame.data); out.enqueue(frame); } })).pipeTo(writable); };
window.RTCPeerConnection = class extends RTCPeerConnection {
  constructor(configuration) { super({ ...configuration, encodedInsertableStreams: true }); made += 1;
    this.addEventListener('track', event => see(event.receiver, data => packets.push(btoa(String.fromCharCode(...new Uint8Array(data)))))); }
  addTrack(...all) { const sender = super.addTrack(...all); see(sender, () => {}); return sender; }
};
if (navigator.mediaDevices) {
  const open = navigator.mediaDevices.getUserMedia.bind(navigator.mediaDevices);
  navigator.mediaDevices.getUserMedia = () => open({ audio: { echoCancellation: false, noiseSuppression: false, autoGainControl: false } });
}").

%% Starts a browser, in its own folder, whose microphone plays a tone continuously.
start(Folder, Pitch) ->
    ok = filelib:ensure_path(Folder),
    Tone = filename:join(Folder, "tone.wav"),
    ok = tones:file(Tone, Pitch),
    Words = ["chromium", "--headless=new", "--no-sandbox", "--disable-gpu", "--disable-dev-shm-usage", "--no-first-run", "--remote-debugging-pipe",
             "--user-data-dir=" ++ Folder, "--use-fake-device-for-media-stream", "--use-file-for-fake-audio-capture=" ++ Tone,
             "--autoplay-policy=no-user-gesture-required", "--allow-loopback-in-peer-connection", "--disable-background-timer-throttling",
             "--disable-renderer-backgrounding", "--disable-backgrounding-occluded-windows", "about:blank"],
    %% Chromium reads commands from file descriptor 3, and writes answers to file descriptor 4.
    Script = "log=$1; shift; exec \"$@\" 3<&0 4>&1 < /dev/null > \"$log\" 2>&1",
    Pid = spawn(fun() ->
        Port = open_port({spawn_executable, "/bin/sh"}, [{args, ["-c", Script, "sh", filename:join(Folder, "log") | Words]}, binary, exit_status]),
        loop(Port, <<>>, 1, #{})
    end),
    tab(#browser{pid = Pid}).

stop(Browser = #browser{pid = Pid}) ->
    Monitor = monitor(process, Pid),
    ask("Browser.close", #{}, Browser#browser{session = undefined}),
    receive {'DOWN', Monitor, process, Pid, _} -> ok after ?LIMIT -> error(not_stopped) end.

loop(Port, Buffer, Number, Waiting) ->
    receive
        {ask, From, Message} ->
            true = port_command(Port, [jiffy:encode(Message#{id => Number}), 0]),
            loop(Port, Buffer, Number + 1, Waiting#{Number => From});
        {Port, {data, Data}} ->
            [Rest | Whole] = lists:reverse(binary:split(<<Buffer/binary, Data/binary>>, <<0>>, [global])),
            loop(Port, Rest, Number, lists:foldr(fun told/2, Waiting, [jiffy:decode(Text, [return_maps]) || Text <- Whole]));
        {Port, {exit_status, Status}} -> exit({chromium_ended, Status})
    end.

told(Message = #{<<"id">> := Number}, Waiting) ->
    {{Pid, Tag}, Rest} = maps:take(Number, Waiting),
    Pid ! {Tag, Message},
    Rest;
told(_, Waiting) ->
    Waiting.

%% Calls a method of the protocol, and returns its result.
ask(Method, Params, #browser{pid = Pid, session = Session}) ->
    Monitor = monitor(process, Pid),
    Message = #{method => list_to_binary(Method), params => Params},
    Pid ! {ask, {self(), Monitor}, case Session of undefined -> Message; _ -> Message#{sessionId => Session} end},
    receive
        {Monitor, #{<<"result">> := Result}} -> demonitor(Monitor, [flush]), Result;
        {Monitor, #{<<"error">> := Error}} -> error({chromium, Method, Error});
        {'DOWN', Monitor, process, Pid, Reason} -> error(Reason)
    after ?LIMIT -> error({no_answer, Method})
    end.

%% Opens a page that shares nothing with other pages, as if it were in another browser.
tab(Browser) ->
    #{<<"browserContextId">> := Context} = ask("Target.createBrowserContext", #{}, Browser#browser{session = undefined}),
    #{<<"targetId">> := Target} = ask("Target.createTarget", #{url => <<"about:blank">>, browserContextId => Context}, Browser#browser{session = undefined}),
    #{<<"sessionId">> := Session} = ask("Target.attachToTarget", #{targetId => Target, flatten => true}, Browser#browser{session = undefined}),
    Tab = Browser#browser{session = Session},
    [ask(Method, Params, Tab) || {Method, Params} <- [{"Page.enable", #{}}, {"Network.enable", #{}}, {"Accessibility.enable", #{}},
                                                      {"Page.addScriptToEvaluateOnNewDocument", #{source => <<?PROBE>>}}]],
    Tab.

close(Tab) ->
    ask("Page.close", #{}, Tab).

%% Sets whether pages of this origin may use the microphone: granted or denied.
microphone(Setting, Origin, Tab) ->
    #{<<"targetInfo">> := #{<<"browserContextId">> := Context}} = ask("Target.getTargetInfo", #{}, Tab),
    ask("Browser.setPermission", #{permission => #{name => microphone}, setting => Setting, origin => iolist_to_binary(Origin), browserContextId => Context}, Tab).

%% Opens an empty page first, because the new URL may differ from the old one only after the #.
open(Url, Tab) ->
    [begin
         ask("Page.navigate", #{url => iolist_to_binary(To)}, Tab),
         Shown = iolist_to_binary(["location.href === ", jiffy:encode(iolist_to_binary(To)), " && document.readyState === 'complete'"]),
         lobby_case:until(fun() -> value(Shown, Tab) =:= true end, ?LIMIT)
     end || To <- ["about:blank", Url]],
    ok.

%% Returns the value of an expression in the page. It is `undefined' while the page is being left.
value(Expression, Tab) ->
    case ask("Runtime.evaluate", #{expression => iolist_to_binary(Expression), returnByValue => true, awaitPromise => true, userGesture => true}, Tab) of
        #{<<"exceptionDetails">> := Details} -> error({script, Expression, Details});
        #{<<"result">> := Result} -> maps:get(<<"value">>, Result, undefined)
    end.

%% Returns the page's text, without the characters that isolate names from the text around them.
text(Tab) ->
    Text = value("document.body.innerText", Tab),
    << <<Char/utf8>> || <<Char/utf8>> <= Text, Char =/= 16#2068, Char =/= 16#2069 >>.

%% Presses a key: Tab, Enter or Space.
key(Key, Tab) ->
    {Name, Code, Text} = maps:get(Key, #{"Tab" => {<<"Tab">>, 9, <<>>}, "Enter" => {<<"Enter">>, 13, <<"\r">>}, "Space" => {<<" ">>, 32, <<" ">>}}),
    Named = #{key => Name, code => list_to_binary(Key), windowsVirtualKeyCode => Code},
    [ask("Input.dispatchKeyEvent", Event, Tab) || Event <- [Named#{type => keyDown, text => Text}, Named#{type => keyUp}]],
    ok.

%% Clicks the element with this id.
press(Id, Tab) ->
    undefined = value(["document.getElementById('", Id, "').click()"], Tab),
    ok.

%% Returns the packets that have arrived since the last call.
packets(Tab) ->
    [base64:decode(Packet) || Packet <- value("window.packets?.splice(0) ?? []", Tab)].
