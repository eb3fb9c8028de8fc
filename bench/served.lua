wrk.method = "POST"
wrk.headers["Content-Type"] = "application/json"
%s
wrk.body = '%s'
function response(status) if status ~= %d then print("status " .. status) end end
