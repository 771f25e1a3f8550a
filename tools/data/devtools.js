// Reads trace events as the panel Performance of DevTools does when it loads a file, and returns the slices that it would show, or null
// if this Chromium has no such modules.
(async text => {
    const model = await import('devtools://devtools/bundled/models/trace/trace.js').catch(() => null);
    if (!model?.TraceModel?.Model?.createWithAllHandlers) return null;
    const reader = model.TraceModel.Model.createWithAllHandlers(model.Types.Configuration.defaults());
    await reader.parse(JSON.parse(text).traceEvents, {metadata: {}, isFreshRecording: false});
    const {Meta, Renderer} = reader.parsedTrace(0).data, found = [];
    for (const [pid, {threads}] of Renderer.processes)
        for (const [tid, {name, entries}] of threads)
            for (const entry of entries)
                found.push([pid, tid, Meta.processNames.get(pid)?.args.name, name, entry.name, entry.ts, entry.dur]);
    return found;
})
