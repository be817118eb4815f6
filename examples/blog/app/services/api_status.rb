module APIStatus
  OK = "ok".freeze
end
