# Asks a server from R; it needs the package httr (apt-get install r-cran-httr).
#
#     misteluk serve examples/stories/transfers.csv --add --source from --target to --weight amount --time day \
#         --weight-scale 100 --times iso &
#     Rscript examples/stories/served.R http://127.0.0.1:7700
#
# A session holds a version, so that all answers agree while the feed goes on.
library(httr)
server <- sub("/$", "", commandArgs(trailingOnly = TRUE)[1])
session <- content(stop_for_status(POST(paste0(server, "/v1/sessions"))))$session
ask <- function(question, ...) {
  answer <- GET(paste0(server, "/v1/", question), query = list(session = session, ...), accept("text/csv"))
  read.csv(text = content(stop_for_status(answer), "text", encoding = "UTF-8"))
}
degrees <- ask("degrees", top = 3, by = "weight_out")
print(degrees, row.names = FALSE)
print(ask("neighborhood", vertex = "ana", hops = 1), row.names = FALSE)
ended <- DELETE(paste0(server, "/v1/sessions/", session))
