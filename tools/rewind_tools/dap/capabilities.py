"""What the adapter tells an editor that it can."""

SUPPORTED = """ConfigurationDoneRequest FunctionBreakpoints ConditionalBreakpoints DataBreakpoints
EvaluateForHovers StepBack RestartRequest GotoTargetsRequest CompletionsRequest ExceptionInfoRequest
TerminateRequest CancelRequest LoadedSourcesRequest SingleThreadExecutionRequests""".split()
CAPABILITIES = {
    **{f"supports{it}": True for it in SUPPORTED},
    "completionTriggerCharacters": [" "],
    "exceptionBreakpointFilters": [
        {"filter": "refused", "label": "Lines of the script that are refused", "default": True}
    ],
}
