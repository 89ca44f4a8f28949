verify --survey survey-open.survey
